// What several rule files use: an include. The externals `limit` and `team` come from the words.

private rule Small {
  condition:
    filesize < limit
}

private rule Ours {
  condition:
    team iequals "response"
}
