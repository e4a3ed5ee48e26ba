cat "$TOP/examples/labels.log"
