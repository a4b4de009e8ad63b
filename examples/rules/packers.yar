rule Upx_Head : packer {
  strings:
    $magic = "UPX!"
    $note = "$Info: This file is packed with the UPX executable packer"
  condition:
    $note or for any i in (1..#magic) : ( @magic[i] < 1KB or @magic[i] + 1KB > filesize )
}

rule Long_Run_Of_One_Byte : packer {
  meta:
    description = "a long stretch of nops before code"
  strings:
    $nops = { 90 90 90 90 90 90 90 90 90 90 90 90 90 90 90 90 [0-64] ( E8 | E9 | EB ) }
  condition:
    $nops
}

rule Rotating_Key : packer {
  strings:
    $loop = { 30 ?? [0-4] ( 40 | 41 | 46 | 47 | FF C? ) [0-8] ( 75 | E2 ) ( E? | F? ) }
  condition:
    $loop and filesize < 5MB
}
