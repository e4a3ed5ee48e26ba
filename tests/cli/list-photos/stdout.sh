cat "$TOP/examples/photos.log"
