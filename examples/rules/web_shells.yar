rule Php_Shell_Eval : webshell php {
  meta:
    description = "runs what a request brings"
    score = 90
  strings:
    $open = "<?php" nocase
    $eval = /(eval|assert|system|passthru|shell_exec)\s*\(\s*\$_(GET|POST|REQUEST|COOKIE)\[/ nocase
    $decode = /eval\s*\(\s*(gzinflate|str_rot13|base64_decode)\s*\(/ nocase
  condition:
    filesize < 1MB and $open and any of ($eval, $decode)
}

rule Jsp_Shell_Exec : webshell jsp {
  strings:
    $page = "<%@ page" nocase
    $exec = "Runtime.getRuntime().exec(" nocase
    $parameter = "request.getParameter(" nocase
  condition:
    all of them
}

rule Aspx_Shell : webshell {
  strings:
    $page = "<%@ Page" nocase
    $process = "System.Diagnostics.Process" nocase
    $command = "cmd.exe" nocase fullword
  condition:
    $page at 0 and 2 of them
}
