cat "$TOP/examples/format.log"
