import "elf"

rule Elf_Reverse_Shell : linux shell {
  meta:
    description = "ELF programs that connect a shell to a socket"
    author = "Tegwolish"
    score = 80
  strings:
    $shell = "/bin/sh" fullword
    $dup = { 6A 21 58 [0-8] 0F 05 }
    $connect = { 6A 2A 58 0F 05 }
    $name = "connect" fullword
  condition:
    elf.type == elf.ET_EXEC and $shell and ($dup or $connect or $name)
}

rule Elf_Preload : linux persistence {
  meta:
    description = "names the file from which every program loads a library"
    score = 60
  strings:
    $file = "/etc/ld.so.preload"
    $variable = "LD_PRELOAD" nocase
  condition:
    uint32be(0) == 0x7f454c46 and any of them
}

rule Elf_Odd_Section : linux {
  meta:
    description = "a section that may be written and run"
  condition:
    for any s in elf.sections : (
      s.flags & elf.SHF_WRITE != 0 and s.flags & elf.SHF_EXECINSTR != 0
    )
}
