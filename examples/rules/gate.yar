// A gate for its namespace: no rule of the namespace is reported for larger files.
global private rule Not_Too_Large {
  condition:
    filesize <= 16MB
}

rule Has_Url {
  strings:
    $url = /https?:\/\/[a-z0-9.-]{3,60}\/[a-z0-9\/_.-]{1,60}/ nocase
  condition:
    $url
}

rule Has_Few {
  condition:
    filesize < 100
}

rule Many_Urls {
  strings:
    $url = /https?:\/\// nocase
  condition:
    #url >= 10 and not Has_Few
}
