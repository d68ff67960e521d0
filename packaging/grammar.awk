# Writes docs/GRAMMAR.md as a page of HTML: its text as it stands, with an anchor at each heading.
BEGIN {
    print "<!doctype html>\n<html lang=\"en\">\n<meta charset=\"utf-8\">"
    print "<meta name=\"viewport\" content=\"width=device-width, initial-scale=1\">"
    print "<meta name=\"color-scheme\" content=\"light dark\">"
    print "<title>The grammar of integers</title>\n<pre style=\"white-space: pre-wrap\">"
}
{
    gsub(/&/, "\\&amp;")
    gsub(/</, "\\&lt;")
}
/^## / {
    anchor = tolower(substr($0, 4))
    gsub(/[^a-z0-9_ -]/, "", anchor)
    gsub(/ /, "-", anchor)
    $0 = "<b id=\"" anchor "\">" $0 "</b>"
}
{ print }
END { print "</pre>" }
