# Completion of the program's words for bash: commands, modes and styles. Addresses and lengths are the user's.

_feddurzai()
{
    local word=${COMP_WORDS[COMP_CWORD]} words=
    case $COMP_CWORD in
        1) words='list info recode flow asm move map blocks slots rows sample --help --version' ;;
        2)
            case ${COMP_WORDS[1]} in
                list | info | recode | flow | asm | move | map | blocks | slots) words='16 32 64' ;;
            esac
            ;;
        4)
            case ${COMP_WORDS[1]} in
                list) words='intel att masm' ;;
                recode) words='16 32 64' ;;
            esac
            ;;
    esac
    mapfile -t COMPREPLY < <(compgen -W "$words" -- "$word")
}

complete -F _feddurzai feddurzai
