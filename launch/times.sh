# How long it takes to build a program on four processors with nothing beside, in the words in which the launchers say
# it. Measured; change them here alone.
# shellcheck shell=bash
# shellcheck disable=SC2034,SC2154
checked_build="one to two minutes"
case $name in
  ltfs_server)
    optimised_build="two to four minutes"
    proved_build="up to 40 minutes on four processors"
    ;;
  *)
    optimised_build="about a minute"
    proved_build="up to 20 minutes on four processors"
    ;;
esac
