# For scripts that try a program of target/bin on inputs; $program is its name.
line=$'\n'
tried=0

# expect NAME WANTED: holds what the program makes of standard input to WANTED.
expect() {
    local got
    got=$(target/bin/"$program"; echo .)
    if [ "$got" != "$2." ]; then
        printf '%s: %s: got %q, wanted %q\n' "$program" "$1" "$got" "$2."
        exit 1
    fi
    tried=$((tried + 1))
}

# fails NAME: on this input, and writing to standard output, the program must end with status 1 and say why on standard error.
fails() {
    local status=0 said
    { said=$(target/bin/"$program" 2>&1 >&3) || status=$?; } 3>&1
    if [ "$status" != 1 ] || [ -z "$said" ]; then
        printf '%s: %s: status %d, and said %q\n' "$program" "$1" "$status" "$said"
        exit 1
    fi
    tried=$((tried + 1))
}
