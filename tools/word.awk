# Writes the word of a script: that of its first comment `# osi WORD:`, which stands above every other line, by comments and empty lines alone.
# None is written where the script has no such comment.
/^# osi (run|datagrams|inactive|relay):/ {
    sub(/:.*/, "", $3)
    print $3
    exit
}
!/^#/ && !/^\r?$/ { exit }
