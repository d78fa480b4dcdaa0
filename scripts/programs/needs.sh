# Sourced by ./prove and scripts/programs/launch.sh: what the Rattle kit needs to run.

# What a try of the program takes of memory, and the check of the largest crate with one job: 3 GB.
NEEDED_MB=3000

# The memory that can still be had, in MB: the least that the machine, a control group and `ulimit -v` leave.
free_memory() {
    local group=/sys/fs/cgroup limit
    {
        awk '/^MemAvailable:/ { print int($2 / 1024) }' /proc/meminfo
        limit=$(ulimit -v)
        [ "$limit" = unlimited ] || echo $((limit / 1024))
        limit=$(cat "$group/memory.max" 2> /dev/null) && [ "$limit" != max ] &&
            awk -v limit="$limit" '$1 == "anon" { print int((limit - $2) / 1048576) }' "$group/memory.stat"
    } | sort -n | head -n 1
}

# What is missing, in words; nothing where all is there.
what_is_missing() {
    local free
    if ! python3 -c 'import sys; sys.exit(sys.version_info < (3, 8))' < /dev/null 2> /dev/null; then
        echo "there is no Python 3.8 or later (python3) on the path"
    elif ! command -v rt > /dev/null || ! command -v rattle > /dev/null; then
        echo "the Rattle kit (rt and rattle) is not on the path"
    else
        free=$(free_memory)
        [ "$free" -ge $NEEDED_MB ] || echo "too little memory is free: $free MB, and $NEEDED_MB are needed"
    fi
}
