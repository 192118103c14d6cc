# The name of an enum's value for a name of the tables: NO_SIGN is `NoSign`. The printing scripts put it before their own rules.
function named(name,   word, words, i, whole) {
    words = split(name, word, "_")
    for (i = 1; i <= words; i++) whole = whole substr(word[i], 1, 1) tolower(substr(word[i], 2))
    return whole
}
