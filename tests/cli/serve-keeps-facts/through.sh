for kept in "<comment>Nightly &amp; weekly</comment>" "<name>Archive</name>" \
  "<volumelockstate>unlocked</volumelockstate>"; do
  before=$(grep -aoF "$kept" "$TOP/examples/archive/dp.img" | wc -l)
  after=$(grep -aoF "$kept" tape/dp.img | wc -l)
  echo "$((after - before)) more of $kept"
done
