rule Office_Macro : document {
  meta:
    description = "an old office file with a macro that starts by itself"
  strings:
    $storage = { D0 CF 11 E0 A1 B1 1A E1 }
    $auto1 = "AutoOpen" nocase wide ascii
    $auto2 = "Document_Open" nocase wide ascii
    $shell1 = "WScript.Shell" nocase wide ascii
    $shell2 = "powershell" nocase wide ascii
  condition:
    $storage at 0 and any of ($auto*) and any of ($shell*)
}

rule Pdf_Open_Action : document pdf {
  strings:
    $head = "%PDF-"
    $action = "/OpenAction"
    $script = /\/JS\s*\(/
    $launch = "/Launch"
  condition:
    $head in (0..1024) and $action and ($script or $launch)
}

rule Rtf_Object : document {
  strings:
    $head = "{\\rt"
    $object = "\\objdata" nocase
    $equation = "Equation.3" nocase
    $hidden = { 45 71 75 61 74 69 6F 6E 2E 33 }
  condition:
    $head at 0 and $object and any of ($equation, $hidden)
}
