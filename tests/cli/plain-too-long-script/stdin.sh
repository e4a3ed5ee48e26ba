head -c 16777205 /dev/zero | tr '\0' '#'
printf '\n1 mkdir /a\n'
