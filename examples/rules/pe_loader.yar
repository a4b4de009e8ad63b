import "pe"
import "hash"

private rule Is_Pe {
  condition:
    uint16(0) == 0x5a4d and defined pe.machine
}

rule Pe_Packed : windows packer {
  meta:
    description = "sections named by a well-known packer"
  condition:
    Is_Pe and for any s in pe.sections : (
      s.name startswith "UPX" or s.name == ".aspack" or s.name == ".petite"
    )
}

rule Pe_Loader_In_Memory : windows loader {
  meta:
    description = "resolves what it needs to run code from memory"
    score = 70
  strings:
    $alloc = "VirtualAlloc" ascii wide
    $protect = "VirtualProtect" ascii wide
    $write = "WriteProcessMemory" ascii wide
    $thread = "CreateRemoteThread" ascii wide
    $load = "LoadLibraryA" fullword
    $find = "GetProcAddress" fullword
  condition:
    Is_Pe and 2 of ($alloc, $protect, $write, $thread) and all of ($load, $find)
}

rule Pe_Known_Header : windows {
  meta:
    description = "a header that was seen before, by its digest"
  condition:
    Is_Pe and hash.sha256(0, 64) == "0ee33db90b52d8ee5e4d1d1a0bd8ca1e3fc9ae53dabc3dfc4a6be4a2c3d0d6f1"
}
