# Completion of strace_cli, strace_sweep and guest_host for bash: source this file, or put it where bash-completion looks.
# Written by completions/make.
_girmolet_names='brk chdir clone close dup dup3 execve exit exit_group fstat ftruncate getcwd getpid getppid gettid kill lseek mkdirat mmap munmap newfstatat openat pipe2 read rt_sigaction rt_sigprocmask rt_sigreturn sched_yield unlinkat wait4 write'
_girmolet_calls="all none %file %desc %process %signal %memory $_girmolet_names"
_girmolet_errors='E2BIG EACCES EADDRINUSE EADDRNOTAVAIL EADV EAFNOSUPPORT EAGAIN EALREADY EBADE EBADF EBADFD EBADMSG EBADR EBADRQC EBADSLT EBFONT EBUSY ECANCELED ECHILD ECHRNG ECOMM ECONNABORTED ECONNREFUSED ECONNRESET EDEADLK EDEADLOCK EDESTADDRREQ EDOM EDOTDOT EDQUOT EEXIST EFAULT EFBIG EHOSTDOWN EHOSTUNREACH EHWPOISON EIDRM EILSEQ EINPROGRESS EINTR EINVAL EIO EISCONN EISDIR EISNAM EKEYEXPIRED EKEYREJECTED EKEYREVOKED EL2HLT EL2NSYNC EL3HLT EL3RST ELIBACC ELIBBAD ELIBEXEC ELIBMAX ELIBSCN ELNRNG ELOOP EMEDIUMTYPE EMFILE EMLINK EMSGSIZE EMULTIHOP ENAMETOOLONG ENAVAIL ENETDOWN ENETRESET ENETUNREACH ENFILE ENOANO ENOBUFS ENOCSI ENODATA ENODEV ENOENT ENOEXEC ENOKEY ENOLCK ENOLINK ENOMEDIUM ENOMEM ENOMSG ENONET ENOPKG ENOPROTOOPT ENOSPC ENOSR ENOSTR ENOSYS ENOTBLK ENOTCONN ENOTDIR ENOTEMPTY ENOTNAM ENOTRECOVERABLE ENOTSOCK ENOTSUP ENOTTY ENOTUNIQ ENXIO EOPNOTSUPP EOVERFLOW EOWNERDEAD EPERM EPFNOSUPPORT EPIPE EPROTO EPROTONOSUPPORT EPROTOTYPE ERANGE EREMCHG EREMOTE EREMOTEIO ERESTART ERFKILL EROFS ESHUTDOWN ESOCKTNOSUPPORT ESPIPE ESRCH ESRMNT ESTALE ESTRPIPE ETIME ETIMEDOUT ETOOMANYREFS ETXTBSY EUCLEAN EUNATCH EUSERS EWOULDBLOCK EXDEV EXFULL'
_girmolet_signals='HUP INT QUIT ILL TRAP ABRT BUS FPE KILL USR1 SEGV USR2 PIPE ALRM TERM STKFLT CHLD CONT STOP TSTP TTIN TTOU URG XCPU XFSZ VTALRM PROF WINCH IO PWR SYS'
_girmolet_options='-f --follow-forks -e --trace --inject --fault -o --output -s --string-limit -a --columns --host --host-arg --host-timeout --turns --workers --turns-out --limit --explain --file --dir -E --env --files-out --files-list -h --help -V --version --'
_girmolet_plain_options='-e --inject --fault --turns --limit --explain --file --dir -E --env --files-out --files-list -h --help --'
_girmolet_sweep_options='-f --follow-forks -e --fault --errors --format --each --all -o --output --turns --orders --seed --keep --one --known --known-out --shard --fail-fast --max-runs --time --check --then --strict --cases --runs --show --jobs --limit --explain --file --dir -E --env -h --help -V --version --'

# Candidates for a set, with its qualifier or without.
_girmolet_set() {
    local word=$1 before=
    case $word in
        *,*) before=${word%,*}, ;;
        *=*) before=${word%%=*}= ;;
        *) compgen -W 'trace= inject= fault=' -- "$word" ;;
    esac
    word=${word#"$before"}
    case $word in '!'* | '?'*) before=$before${word:0:1}; word=${word:1} ;; esac
    compgen -P "$before" -W "$_girmolet_calls" -- "$word"
}

# Candidates for an expression: its words up to the part under way, and what may stand there.
_girmolet_expression() {
    local word=$1 part=${1##*:} before
    before=${word%"$part"}
    if [ -z "$before" ]; then
        _girmolet_set "$word"
        return
    fi
    case $part in
        error=*) compgen -P "${before}error=" -W "$_girmolet_errors" -- "${part#*=}" ;;
        signal=*) compgen -P "${before}signal=" -W "$_girmolet_signals" -- "${part#*=}" ;;
        *=*) ;;
        *)
            case $before in
                inject=*) compgen -P "$before" -W 'error= retval= signal= when=' -- "$part" ;;
                fault=*) compgen -P "$before" -W 'error= when=' -- "$part" ;;
            esac ;;
    esac
}

# Candidates for an expression of a sweep: the calls that fail, and their errors.
_girmolet_faults() {
    local word=$1
    case $word in
        fault=*:error=*,*|deep=*:error=*,*) compgen -P "${word%,*}," -W "$_girmolet_errors" -- "${word##*,}" ;;
        fault=*:error=*|deep=*:error=*) compgen -P "${word%=*}=" -W "$_girmolet_errors" -- "${word##*=}" ;;
        fault=*:*|deep=*:*) compgen -P "${word%:*}:" -W 'error=' -- "${word##*:}" ;;
        *=*) _girmolet_expression "$word" ;;
        *) compgen -W 'fault= deep= stop= kill= short= full= broken= read-only= no-files= no-memory=' -- "$word" ;;
    esac
}

# Candidates for a row of --show: a call, and then what happens there.
_girmolet_row() {
    local word=${1##*+} before
    before=${1%"$word"}
    case $word in
        *:*:*) ;;
        *:*)
            compgen -P "$before${word%%:*}:" -S : -W "$_girmolet_errors stop kill full broken read-only no-files no-memory" -- "${word#*:}"
            compgen -P "$before${word%%:*}:" -W short= -- "${word#*:}" ;;
        *) compgen -P "$before" -S : -W "$_girmolet_names" -- "$word" ;;
    esac
}

# The guest's files that the words before name.
_girmolet_guests() {
    local -a guests
    local i guest
    for ((i = 1; i < ${#all[@]}; i++)); do
        guest=${all[i]#--file=}
        case ${all[i - 1]}:${all[i]} in --file:* | *:--file=*) guests+=("${guest%%=*}") ;; esac
    done
    compgen -W "${guests[*]}" -- "$1"
}

_girmolet() {
    # words as they were typed, since bash divides them at = and : too
    local -a all
    read -ra all <<<"${COMP_LINE:0:COMP_POINT}"
    case ${COMP_LINE:COMP_POINT-1:1} in ' ') all+=("") ;; esac
    local word=${all[-1]} before=${all[-2]} program=${all[0]##*/} expression=_girmolet_expression
    local found i quote= option= files=
    case $program in strace_sweep) expression=_girmolet_faults ;; esac
    for i in "${all[@]:1:${#all[@]}-2}"; do
        if [ "$i" = -- ]; then before=--; break; fi
    done
    case $word in [\'\"]*) quote=${word:0:1} word=${word:1} ;; esac
    case $before:$word in
        --:*) ;;
        *:--*=*) before=${word%%=*} word=${word#*=} option=$before= ;;
    esac
    case $before in
        --) found=$(_girmolet_guests "$word") ;;
        -o | --output | --host | --turns | --turns-out | --known | --known-out | --cases | --runs | --files-list) found=$(compgen -f -- "$word") files=1 ;;
        --keep | --files-out) found=$(compgen -d -- "$word") files=1 ;;
        -e) found=$($expression "$word") ;;
        --trace) found=$(_girmolet_expression "trace=$word" | sed s/^trace=//) ;;
        --inject) found=$(_girmolet_expression "inject=$word" | sed s/^inject=//) ;;
        --fault) found=$($expression "fault=$word" | sed s/^fault=//) ;;
        --format) found=$(compgen -W 'table json junit' -- "$word") ;;
        --errors) found=$(compgen -W 'possible all' -- "$word") ;;
        --show) found=$(_girmolet_row "$word") ;;
        --file) case $word in *=*) found=$(compgen -P "${word%%=*}=" -f -- "${word#*=}") files=1 ;; esac ;;
        --dir) case $word in *=*) found=$(compgen -P "${word%%=*}=" -d -- "${word#*=}") files=1 ;; esac ;;
        -s | --string-limit | -a | --columns | --host-timeout | --workers | --orders | --seed | --shard | --max-runs | --time | --check | --then | --jobs | --limit | -E | --env) ;;
        *)
            case $program:${all[1]}:$word in
                strace_sweep:*) found=$(compgen -W "$_girmolet_sweep_options" -- "$word") ;;
                guest_host:plain:*) found=$(compgen -W "$_girmolet_plain_options" -- "$word") ;;
                guest_host:asm:*) found=$(compgen -f -- "$word") ;;
                guest_host:serve:*) found=$(compgen -W '-h --help' -- "$word") ;;
                guest_host:*) found=$(compgen -W 'plain asm serve -h --help -V --version' -- "$word") ;;
                *) found=$(compgen -W "$_girmolet_options" -- "$word") ;;
            esac ;;
    esac
    COMPREPLY=()
    [ -n "$found" ] && mapfile -t COMPREPLY <<<"$found"
    # bash puts a candidate in the place of what stands after the last = or :, and within quotes of all of it
    before=${word%"${word##*[=:]}"}
    if [ -z "$quote" ]; then COMPREPLY=("${COMPREPLY[@]#"$before"}"); else COMPREPLY=("${COMPREPLY[@]/#/$option}"); fi
    # blanks of a file's name are escaped; within quotes, and after its guest's path, they may stay
    if [ -n "$files" ] && [ -z "$quote" ]; then compopt -o filenames 2>/dev/null; fi
    # a blank follows what is whole
    case ${#COMPREPLY[@]}:${COMPREPLY[0]} in 1:-*) compopt +o nospace 2>/dev/null ;; esac
}
complete -o nospace -F _girmolet strace_cli strace_sweep guest_host
