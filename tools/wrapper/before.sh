# shellcheck shell=bash disable=SC2154
# What is looked at before a run, which may take long. It tells nothing of what a run promises: a
# warning is a hint, and what can't be written would be found at the end of the run too.

has_file() {
    [ -n "$(find "$1/" -name "$2" -print 2>/dev/null | head -n 1)" ]
}

# has_text FOLDER TEXT..: whether a class file in it has one of these texts.
has_text() {
    local folder=$1 text texts=()
    shift
    for text in "$@"; do
        texts+=(-e "$text")
    done
    [ -n "$(find "$folder/" -name '*.class' -type f -exec grep -lF "${texts[@]}" {} + 2>/dev/null |
        head -n 1)" ]
}

has_test() {
    has_text "$1" 'Lorg/junit/Test;' 'Lorg/junit/jupiter/api/Test;'
}

is_archive() {
    [[ $1 == *.jar || $1 == *.zip || $1 == *.war ]]
}

# Says what a folder has in place of class files, if it has none.
instead_of_classes() {
    local kind
    ! has_file "$1" '*.class' || return
    if has_file "$1" '*.java'; then
        echo "'$1' has no class file, but .java files: name the folder that 'javac -d' wrote"
        return
    fi
    for kind in jar war zip; do
        if has_file "$1" "*.$kind"; then
            echo "'$1' has no class file, but archives: unpack them, and name the folder"
            return
        fi
    done
    echo "'$1' has no class file"
}

warn_of_folders() {
    local classes=$1 tests=$2 folder odd found=
    for folder in "$classes" "$tests"; do
        # An empty folder is told by the program.
        odd=$(instead_of_classes "$folder")
        [ -z "$odd" ] || found=1
        [ -z "$odd" ] || [ -z "$(ls -A "$folder")" ] || say "warning: $odd"
    done
    [ -z "$found" ] && ! has_test "$tests" || return
    odd="no class file in '$tests' has a test of JUnit 4 or 5"
    if has_test "$classes"; then
        odd+="; those in '$classes' have: are the two folders exchanged?"
    elif has_text "$tests" junit/framework/TestCase; then
        odd+="; those of JUnit 3 aren't found"
    elif has_text "$tests" 'Lorg/testng/annotations/Test;'; then
        odd+="; those of TestNG aren't found"
    fi
    say "warning: $odd"
}

# Whether one of the packages of the classes has a file in a folder of sources.
has_sources() {
    local classes=$1 sources=$2 package
    while IFS= read -r package; do
        [ -z "$(find "$sources/$package" -maxdepth 1 -type f -print -quit 2>/dev/null)" ] || return 0
    done < <(find "$classes/" -name '*.class' -type f -printf '%P\n' | sed 's:[^/]*$::' | sort -u | head -n 200)
    return 1
}

# What would be wrong with the lines and the sources of a report.
warn_of_lines() {
    local classes=$1 sources=${given[--sources]-}
    if has_file "$classes" '*.class' && ! has_text "$classes" LineNumberTable; then
        say "warning: no class file in '$classes' has line numbers, so each mutant gets line 1:" \
            "compile with -g:lines"
    fi
    if [ -z "$sources" ] || is_archive "${sources%/}"; then
        return
    elif [ ! -d "$sources" ]; then
        say "warning: the folder '$sources' of --sources isn't there: the report gets no sources"
    elif ! has_sources "$classes" "$sources"; then
        say "warning: no package of '$classes' has a file in '$sources', so the report gets no sources:" \
            "name the folder in which the packages begin"
    fi
}

# Says why a file can't be written at this path, if that is plain.
unwritable() {
    local path=$1 folder
    [[ $path != /dev/* && ! -L $path ]] || return
    folder=$(dirname -- "$path")
    if [ "${path%/}" != "$path" ]; then
        echo "'$path' is a folder"
    elif [ ! -d "$folder" ]; then
        echo "the folder '$folder' isn't there"
    elif [ -d "$path" ]; then
        echo "'$path' is a folder"
    elif [ ! -w "$folder" ] || [ ! -x "$folder" ]; then
        echo "the folder '$folder' can't be written"
    fi
}

# Looks at what a run is given, and ends the script where its answer could not be written.
look_before() {
    local classes=${given[--classes]%/} tests=${given[--tests]%/} folder option odd
    for folder in "$classes" "$tests"; do
        [ -d "$folder" ] && ! is_archive "$folder" || return
    done
    for option in "${!WRITTEN[@]}"; do
        odd=$(unwritable "${given[$option]-/dev/null}")
        if [ -n "$odd" ]; then
            echo "mutest: WriteFault ${WRITTEN[$option]}"
            say "$odd, so $option can't be written: nothing was run"
            exit 11
        fi
    done
    if [ -z "$quiet" ]; then
        warn_of_folders "$classes" "$tests"
        warn_of_lines "$classes"
    fi
}
