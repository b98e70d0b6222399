# A part of ./test and ./varisat.

# Has `rt ci` prove a crate on each processor, where there is memory for that. By itself it proves nothing beside a crate of which it
# thinks that it takes half of the memory: the largest takes 4 GB.
set_jobs() {
  local memory
  memory=$(awk '/^MemTotal/ { print int($2 / 5242880) }' /proc/meminfo 2>/dev/null || echo 0)
  if [ "${memory:-0}" -ge "$(nproc)" ]; then
    export RT_JOBS="${RT_JOBS:-$(nproc)}"
  fi
}
