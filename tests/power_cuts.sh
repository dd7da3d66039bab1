# The power of virtual machines that is cut while the program runs in them.

stores_stand_power_cuts() {
  [ -z "${CHECKED:-}" ] || { echo "a build with checks is too slow in an emulated machine"; return 77; }
  needs_python || return
  local status
  status=$(TMPDIR=$PWD ends timeout 170 "$here/../bench/power_cuts" --reorder --cuts 5 --moments 5 --ckpt "$ckpt")
  case $status in
    0) has "the cuts" "$(cat out)" ": 5 cuts, " ;;
    3) head -n 1 out; return 77 ;;
    124)
      grep '^seed ' out && return 1
      echo "the machines took more than 170 seconds"
      return 77 ;;
    *) cat out err; return 1 ;;
  esac
}

try stores_stand_power_cuts
