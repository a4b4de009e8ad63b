rule Zip_With_Program : archive {
  strings:
    $head = { 50 4B 03 04 }
    $exe = /PK\x03\x04.{26}[^\x00]{1,120}\.(exe|scr|js|vbs)/s
  condition:
    $head at 0 and $exe
}

rule Program_Behind_Picture : archive {
  meta:
    description = "a picture with a program behind its end"
  strings:
    $jpeg = { FF D8 FF }
    $mz = { 4D 5A [58-120] 50 45 00 00 }
    $elf = { 7F 45 4C 46 ( 01 | 02 ) ( 01 | 02 ) 01 }
  condition:
    $jpeg at 0 and for any of ($mz, $elf) : ( @ > 100 )
}
