# awk -f map.awk symbols: prints the linker's version script for these names. A version's names are in one block, which builds on the block
# before it.
function end_block() {
  if (version == "") return
  # No other name is exported. Only one block may say so.
  if (before == "") print "  local: *;"
  print "}" (before == "" ? "" : " VARISAT_" before) ";"
}
/^#/ { next }
$2 != version {
  end_block()
  before = version
  version = $2
  print "VARISAT_" version " {\n  global:"
}
{ print "    " $1 ";" }
END { end_block() }
