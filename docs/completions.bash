# Completions of ./spire for bash: `source docs/completions.bash`. The commands, and what begins with -- in their lines, are those
# that docs/COMMANDS.md sets in; all else is a file or a folder.
_spire_commands=$(dirname "$(readlink -f "${BASH_SOURCE[0]}")")/COMMANDS.md

_spire() {
    local word=${COMP_WORDS[COMP_CWORD]} found
    if [ "$COMP_CWORD" -eq 1 ]; then
        found=$(sed -n 's|^    \./spire \([-a-z]*\).*|\1|p' "$_spire_commands")$'\n--proved\n--help'
    else
        found=$(grep "^    \./spire ${COMP_WORDS[1]} " "$_spire_commands" | grep -oE -- '[[ ]--[a-z]+' | tr -d '[ ')$'\n--help'
        [[ $word == -* ]] || found=
    fi
    mapfile -t COMPREPLY < <(compgen -W "$(sort -u <<<"$found")" -- "$word")
}
complete -o default -F _spire spire
