cat "$TOP/examples/serve.log"
