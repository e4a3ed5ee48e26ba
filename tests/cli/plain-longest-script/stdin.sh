# A comment of 16,777,205 bytes with its line feed, and a call of 11 bytes with the same.
head -c 16777204 /dev/zero | tr '\0' '#'
printf '\n1 mkdir /a\n'
