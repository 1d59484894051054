# What a script says on standard error: for those that set `name`, who speaks.

# Standard error may be gone, at the start or in the middle: that changes nothing.
(: >&2) || exec 2>/dev/null

say() { (trap '' PIPE && echo "$name: $*" >&2) || :; }

fail() {
    say "$*"
    exit 1
}
