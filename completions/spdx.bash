# Completes the words of spdx in bash; made by tools/completions.
_spdx() {
    local words='' now=${COMP_WORDS[COMP_CWORD]} before=${COMP_WORDS[COMP_CWORD-1]} command=${COMP_WORDS[1]}
    COMPREPLY=()
    case "$command $before" in
        'check --format') words='human short json github sarif' ;;
        'check --as') words='cargo npm bower jsr vcpkg elm composer pyproject reuse metadata setup-cfg setup-py cabal opam gem mix rockspec meson rpm alpine arch snap conda galaxy helm citation docker dep5 appstream nuget msbuild ros' ;;
        'check --texts') return ;;
        'check --list') return ;;
        'fix --as') words='cargo npm bower jsr vcpkg elm composer pyproject reuse metadata setup-cfg setup-py cabal opam gem mix rockspec meson rpm alpine arch snap conda galaxy helm citation docker dep5 appstream nuget msbuild ros' ;;
        'fix --list') return ;;
        'gate --policy') return ;;
        'gate --format') words='human short json github sarif html' ;;
        'gate --baseline') return ;;
        'gate --explain') return ;;
        'gate --from') words='auto lines tsv csv verdicts cargo npm composer pip cyclonedx spdx spdx-3 license-checker pnpm metadata' ;;
        'gate --each') return ;;
        'gate --name') return ;;
        'gate --package-version') return ;;
        'gate --license') return ;;
        'gate --list') return ;;
        'notice --accept') return ;;
        'notice --policy') return ;;
        'notice --texts') return ;;
        'notice --sources') return ;;
        'notice --format') words='text markdown html json' ;;
        'notice --from') words='auto lines tsv csv verdicts cargo npm composer pip cyclonedx spdx spdx-3 license-checker pnpm metadata' ;;
        'notice --each') return ;;
        'notice --name') return ;;
        'notice --package-version') return ;;
        'notice --license') return ;;
        'notice --list') return ;;
        'diff --format') words='text json markdown' ;;
        'diff --policy') return ;;
        'diff --from') words='auto lines tsv csv verdicts cargo npm composer pip cyclonedx spdx spdx-3 license-checker pnpm metadata' ;;
        'diff --each') return ;;
        'diff --name') return ;;
        'diff --package-version') return ;;
        'diff --license') return ;;
        'diff --list') return ;;
        'compare --list') return ;;
        'simplify --list') return ;;
    esac
    if [[ -n $words ]]; then
        :
    elif ((COMP_CWORD == 1)); then
        words='check fix gate notice diff compare simplify list help'
    elif [[ $now == -* ]]; then
        case "$command" in
            check) words='--format --strict --lax --headers --manifests --as --texts --untagged --list --quiet --no-summary --help' ;;
            fix) words='--write --break-links --headers --manifests --as --list --help' ;;
            gate) words='--policy --format --baseline --explain --quiet --allow-empty --no-unused --exclude-own --from --header --each --name --package-version --license --list --help' ;;
            notice) words='--accept --policy --texts --without-texts --sources --installed --strict --follow --plain --lax --one-for-all --format --exclude-own --from --header --each --name --package-version --license --list --help' ;;
            diff) words='--format --policy --allow-empty --no-summary --exclude-own --from --header --each --name --package-version --license --list --help' ;;
            compare) words='--lax --list --help' ;;
            simplify) words='--lax --list --help' ;;
            list) words='--help' ;;
        esac
    elif ((COMP_CWORD == 2)); then
        case "$command" in
            list) words='show make diff help' ;;
        esac
    fi
    mapfile -t COMPREPLY < <(compgen -W "$words" -- "$now")
}
complete -o default -F _spdx spdx
