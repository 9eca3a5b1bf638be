# Functions for programs in awk, where LC_ALL is C: `awk "$(cat utf8.awk)"'..'`.

# Whether a text is UTF-8, once each character of more than one byte is left out.
function is_text(text) {
    gsub(/[\302-\337][\200-\277]/, "", text)
    gsub(/\340[\240-\277][\200-\277]|[\341-\354\356\357][\200-\277][\200-\277]|\355[\200-\237][\200-\277]/, "", text)
    gsub(/\360[\220-\277][\200-\277][\200-\277]|[\361-\363][\200-\277][\200-\277][\200-\277]/, "", text)
    gsub(/\364[\200-\217][\200-\277][\200-\277]/, "", text)
    return text !~ /[\200-\377]/
}

# A word that a terminal shows as it is.
function shown(word) {
    gsub(/[\001-\037\177]/, "?", word)
    if (!is_text(word)) gsub(/[\200-\377]/, "?", word)
    return word
}

# What is wrong with a word that is not UTF-8.
function no_text(word) { return "`" shown(word) "` is not text in UTF-8, as each word has to be, the name of a file too" }
