# A part of ./varisat and contrib/c/unproved: awk -f unproved.awk SOURCE.. MODULE prints the text of a module, as `rt try` makes it of these
# sources, as it is compiled without proofs.
#
# What `rt try` tests as a program runs is taken out, and the bytes with which it fills memory that is not set. Each function gets back what
# its source says on compiling it in place. A line that has another form in another kit stays: the program is slower then, and as right.
FILENAME ~ /\.rt$/ {
  if ($1 == "#[inline(always)]") hint = "alwaysinline"
  else if ($1 == "#[inline]") hint = "inlinehint"
  else if ($1 == "#[inline(never)]") hint = "noinline"
  else if (hint != "" && match($0, /fn [a-z0-9_]+/)) {
    hints[place(FILENAME) "::" substr($0, RSTART + 3, RLENGTH - 3)] = hint
    hint = ""
  }
  next
}
/^  call void @"rattle-(llvm-checks::[A-Za-z]*|try::site-[0-9]*)"\(.*\)$/ { next }
/^  call void @llvm\.memset\.p0\.i64\(ptr %r[0-9]*, i8 -86, / { next }
/^define / && match($0, /@"[^"]*"/) {
  name = substr($0, RSTART + 2, RLENGTH - 3)
  sub(/::<.*/, "", name)
  # A method's name has that of its type before its own.
  last = name
  sub(/.*::/, "", last)
  free = name
  sub(/::[^:]*::[^:]*$/, "", free)
  free = free "::" last
  hint = name in hints ? hints[name] : hints[free]
  if (hint != "") sub(/ #0 \{$/, " " hint " #0 {")
}
{ print }

# The module of a file CRATE/src/PATH.rt, in which its functions stand.
function place(file,  parts, part, crate) {
  parts = split(file, part, "/src/")
  crate = part[parts - 1]
  sub(/.*\//, "", crate)
  file = part[parts]
  sub(/\.rt$/, "", file)
  gsub(/\//, "::", file)
  return file == "lib" || file == "main" ? crate : crate "::" file
}
