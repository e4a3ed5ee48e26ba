cat "$TOP/examples/archive.xml"
