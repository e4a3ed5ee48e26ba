cat "$TOP/examples/archive.log"
