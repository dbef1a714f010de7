#!/bin/sh
# Runs timetravel.bin beside it, with memory in large pages and much at a time.
self=$0
[ -L "$self" ] && self=$(readlink -f "$self")
case $self in
  */*) ;;
  *) self=./$self ;;
esac
malloc=glibc.malloc.hugetlb=1:glibc.malloc.top_pad=67108864:glibc.malloc.tcache_count=2000
export GLIBC_TUNABLES="${GLIBC_TUNABLES-$malloc}"
exec "${self%/*}/timetravel.bin" "$@"
