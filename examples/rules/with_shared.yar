include "shared.yar"

rule Note_To_Pay : ransom {
  meta:
    description = "a note that asks for money"
  strings:
    $files = "your files have been encrypted" nocase
    $pay1 = "bitcoin" nocase fullword
    $pay2 = "monero" nocase fullword
    $onion = /[a-z2-7]{16,56}\.onion/
  condition:
    Small and $files and (any of ($pay*) or $onion)
}

rule For_The_Team {
  condition:
    Ours and Note_To_Pay
}
