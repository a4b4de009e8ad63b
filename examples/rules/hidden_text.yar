rule Hidden_Program : obfuscation {
  meta:
    description = "the text of a program's head under a one-byte key, or in base64"
  strings:
    $key = "This program cannot be run in DOS mode" xor(0x01-0xff)
    $base = "This program cannot be run in DOS mode" base64 base64wide
  condition:
    any of them
}

rule Hidden_Command : obfuscation {
  strings:
    $a = "powershell -enc" nocase ascii wide
    $b = "FromBase64String" nocase ascii wide
    $c = "IEX(" base64wide
  condition:
    $a or ($b and #b > 2) or $c
}

rule Split_Words : obfuscation {
  meta:
    description = "many short pieces that are put together"
  strings:
    $join = /"[a-z]{1,3}"\s*\+\s*"[a-z]{1,3}"/
  condition:
    #join > 10
}
