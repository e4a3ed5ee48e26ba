cat "$TOP/examples/sessions.script"
