rule Shell_Download_And_Run : script linux {
  strings:
    $get = /(curl|wget)\s[^\n]{0,200}\|\s*(sh|bash)/
    $mark = /chmod\s+\+x\s/
    $tmp = "/tmp/"
  condition:
    $get or ($mark and $tmp)
}

rule Crontab_Change : script persistence {
  strings:
    $a = "crontab -l" fullword
    $b = "/etc/cron.d/"
    $c = "@reboot" fullword
  condition:
    2 of them
}

rule Python_One_Line_Exec : script {
  strings:
    $exec = /exec\s*\(\s*(__import__|base64|zlib|compile)/
    $decode = "b64decode" fullword
  condition:
    all of them and filesize < 64KB
}
