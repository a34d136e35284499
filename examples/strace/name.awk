# Puts a name before each line of strace: the process, the descriptor, and how often the process has opened the descriptor.
/ openat\(/ && match($0, /= [0-9]+$/) { fd = substr($0, RSTART + 2); opened[$1, fd]++; print $1 "." fd "." opened[$1, fd], $0; next }
{ fd = $3; gsub(/[^0-9]/, "", fd); print $1 "." fd "." opened[$1, fd], $0 }
