# Read before the other files: texts.

function trim(text) {
    gsub(/^[ \t]+|[ \t]+$/, "", text)
    return text
}

# A text as it is shown: in quotes, on one line, and not too long.
function quoted(text) {
    gsub(/[\001-\037\177]/, "?", text)
    return "'" (length(text) > 60 ? substr(text, 1, 57) "..." : text) "'"
}

# Whether a text isn't UTF-8. The locale is C, so that a character is a byte.
function is_other_text(text) {
    gsub(/[\302-\337][\200-\277]/, " ", text)
    gsub(/\340[\240-\277][\200-\277]|\355[\200-\237][\200-\277]/, " ", text)
    gsub(/[\341-\354\356\357][\200-\277][\200-\277]/, " ", text)
    gsub(/\360[\220-\277][\200-\277][\200-\277]/, " ", text)
    gsub(/[\361-\363][\200-\277][\200-\277][\200-\277]/, " ", text)
    gsub(/\364[\200-\217][\200-\277][\200-\277]/, " ", text)
    return text ~ /[\200-\377]/
}
