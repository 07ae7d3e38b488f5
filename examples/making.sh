# The `make` of an example reads this file. A script begins with a comment: what it makes, an empty line, and how it is called, which --help prints.
# Then it says, in order, which images there are (image, images), the network (network, or network_of a file), and what is compared (answer); at last it
# calls device.
#
# FOLDER is made if it isn't there. The device FOLDER/device must not be there yet.
set -eu

if [ $# -lt 1 ] || [ $# -gt 2 ] || [ "$1" = --help ] || [ "$1" = -h ]; then
    sed -n '2,/^[^#]/s/^# \{0,1\}//p' "$0"
    case ${1-} in --help | -h) exit 0 ;; esac
    exit 2
fi
here=$(CDPATH= cd -- "$(dirname -- "$0")" && pwd)
tools=$here/../../tools
folder=$1
tpnet=${2:-$here/../../crates/tpnet/out/tpnet}
[ $# -eq 2 ] || [ -e "$tpnet" ] || tpnet=tpnet      # the one on the path, as after an install

command -v -- "$tpnet" > /dev/null || {
    echo "make: no program: $tpnet: build it (docs/GUIDE.md), or name it after FOLDER" >&2
    exit 1
}
if [ -e "$folder/device" ]; then
    echo "make: $folder/device is there already: take another folder, or remove it" >&2
    exit 1
fi
mkdir -p -- "$folder"

# image SOURCE NODE [OPTION ..]: assembles a source for one node; OPTIONs are those of the assembler.
image() {
    source=$1 node=$2
    shift 2
    "$tools/assemble" "$@" "$here/$source" "$folder/$node.img"
}

# images SOURCE NODE ..: assembles a source for several nodes.
images() {
    source=$1
    shift
    for node in "$@"; do
        set -- "$@" "$folder/$node.img"
        shift
    done
    "$tools/assemble" "$here/$source" "$@"
}

# network SHAPE ..: the network is one that tools/topology prints.
network() {
    "$tools/topology" "$@" > "$folder/net.txt"
}

# answer: another program says what goes into the port and what has to come out.
answer() {
    "$here/answer" "$folder"
}

# device AREA [NET]: formats the device; NET is the network's file if it isn't FOLDER/net.txt.
device() {
    "$tpnet" format --new -- "$folder/device" "${2:-$folder/net.txt}" "$folder" "$1"
}
