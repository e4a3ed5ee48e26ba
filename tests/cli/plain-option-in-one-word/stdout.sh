cat "$TOP/examples/sessions.log"
