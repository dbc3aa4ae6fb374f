# Completion of strace_cli, strace_sweep and guest_host for fish: put it into ~/.config/fish/completions, under each name.
# Written by completions/make.
set -g __girmolet_names brk chdir clone close dup dup3 execve exit exit_group fstat ftruncate getcwd getpid getppid gettid kill lseek mkdirat mmap munmap newfstatat openat pipe2 read rt_sigaction rt_sigprocmask rt_sigreturn sched_yield unlinkat wait4 write
set -g __girmolet_calls all none %file %desc %process %signal %memory $__girmolet_names
set -g __girmolet_errors E2BIG EACCES EADDRINUSE EADDRNOTAVAIL EADV EAFNOSUPPORT EAGAIN EALREADY EBADE EBADF EBADFD EBADMSG EBADR EBADRQC EBADSLT EBFONT EBUSY ECANCELED ECHILD ECHRNG ECOMM ECONNABORTED ECONNREFUSED ECONNRESET EDEADLK EDEADLOCK EDESTADDRREQ EDOM EDOTDOT EDQUOT EEXIST EFAULT EFBIG EHOSTDOWN EHOSTUNREACH EHWPOISON EIDRM EILSEQ EINPROGRESS EINTR EINVAL EIO EISCONN EISDIR EISNAM EKEYEXPIRED EKEYREJECTED EKEYREVOKED EL2HLT EL2NSYNC EL3HLT EL3RST ELIBACC ELIBBAD ELIBEXEC ELIBMAX ELIBSCN ELNRNG ELOOP EMEDIUMTYPE EMFILE EMLINK EMSGSIZE EMULTIHOP ENAMETOOLONG ENAVAIL ENETDOWN ENETRESET ENETUNREACH ENFILE ENOANO ENOBUFS ENOCSI ENODATA ENODEV ENOENT ENOEXEC ENOKEY ENOLCK ENOLINK ENOMEDIUM ENOMEM ENOMSG ENONET ENOPKG ENOPROTOOPT ENOSPC ENOSR ENOSTR ENOSYS ENOTBLK ENOTCONN ENOTDIR ENOTEMPTY ENOTNAM ENOTRECOVERABLE ENOTSOCK ENOTSUP ENOTTY ENOTUNIQ ENXIO EOPNOTSUPP EOVERFLOW EOWNERDEAD EPERM EPFNOSUPPORT EPIPE EPROTO EPROTONOSUPPORT EPROTOTYPE ERANGE EREMCHG EREMOTE EREMOTEIO ERESTART ERFKILL EROFS ESHUTDOWN ESOCKTNOSUPPORT ESPIPE ESRCH ESRMNT ESTALE ESTRPIPE ETIME ETIMEDOUT ETOOMANYREFS ETXTBSY EUCLEAN EUNATCH EUSERS EWOULDBLOCK EXDEV EXFULL
set -g __girmolet_signals HUP INT QUIT ILL TRAP ABRT BUS FPE KILL USR1 SEGV USR2 PIPE ALRM TERM STKFLT CHLD CONT STOP TSTP TTIN TTOU URG XCPU XFSZ VTALRM PROF WINCH IO PWR SYS

# The value under way: without the option that stands in the same word, and without a quote that begins it.
function __girmolet_value
    commandline -ct | string replace -r '^["\']' '' | string replace -r '^--[a-z-]+=["\']?' ''
end

# Candidates for an expression, of this qualifier or with its own.
function __girmolet_expression
    set -l option ''
    set -l word (__girmolet_value)
    if test -n "$argv[1]"
        set option $argv[1]=
    end
    set -l whole $option$word
    set -l found
    if string match -qr ':error=[^:]*$' -- $whole
        set found (string replace -r '[^=]*$' '' -- $whole)$__girmolet_errors
    else if string match -qr ':signal=[^:]*$' -- $whole
        set found (string replace -r '[^=]*$' '' -- $whole)$__girmolet_signals
    else if string match -qr '^inject=.*:[^:=]*$' -- $whole
        set found (string replace -r '[^:]*$' '' -- $whole){error=,retval=,signal=,when=}
    else if string match -qr '^fault=.*:[^:=]*$' -- $whole
        set found (string replace -r '[^:]*$' '' -- $whole){error=,when=}
    else if not string match -q '*:*' -- $whole
        set -l before (string match -r '^(?:(?:trace|t|inject|fault)=)?(?:.*,)?[!?]?' -- $whole)
        set found $before$__girmolet_calls
        if test -z "$before"
            set -a found trace= inject= fault=
        end
    end
    string replace -- $option '' $found
end

# Candidates for an expression of a sweep, of this qualifier or with its own.
function __girmolet_faults
    set -l option ''
    set -l word (__girmolet_value)
    if test -n "$argv[1]"
        set option $argv[1]=
    end
    set -l whole $option$word
    set -l found fault= deep= stop= kill= short= full= broken= read-only= no-files= no-memory=
    if string match -qr '^(fault|deep)=.*:error=.*' -- $whole
        set found (string replace -r '[^=,]*$' '' -- $whole)$__girmolet_errors
    else if string match -qr '^(fault|deep)=.*:' -- $whole
        set found (string replace -r '[^:]*$' '' -- $whole)error=
    else if string match -qr '^(fault|deep|stop|kill|short|full|broken|read-only|no-files|no-memory)=' -- $whole
        set found (string match -r '^(?:fault|deep|stop|kill|short|full|broken|read-only|no-files|no-memory)=(?:.*,)?[!?]?' -- $whole)$__girmolet_calls
    end
    string replace -- $option '' $found
end

# The path of the guest stays before the path of the file.
function __girmolet_file
    set -l word (__girmolet_value)
    if string match -q '*=*' -- $word
        set -l guest (string replace -r '=.*' '=' -- $word)
        printf '%s\n' $guest(__fish_complete_path (string replace -r '^[^=]*=' '' -- $word))
    end
end

# A row of --show: a call, and then what happens there.
function __girmolet_row
    set -l word (__girmolet_value)
    set -l before (string match -r '^(?:.*\+)?' -- $word)
    set -l rest (string replace -r '^.*\+' '' -- $word)
    if string match -q '*:*:*' -- $rest
        return
    else if string match -q '*:*' -- $rest
        set before $before(string replace -r ':.*' ':' -- $rest)
        printf '%s
' $before{$__girmolet_errors,stop,kill,full,broken,read-only,no-files,no-memory}: $before'short='
    else
        printf '%s
' $before$__girmolet_names:
    end
end

# The guest's files that the words before name.
function __girmolet_guests
    set -l before
    for word in (commandline -opc)
        if test "$before" = --file; or string match -q -- '--file=*' $word
            string replace -r '^--file=' '' -- $word | string replace -r '=.*' ''
        end
        set before $word
    end
end

complete -c strace_cli -s f -l follow-forks -d 'Traces children too, each line with its pid'
complete -c strace_cli -s e -x -a '(__girmolet_expression)' -d 'Which calls are shown or tampered with, as trace=write or fault=write:error=EIO'
complete -c strace_cli -l trace -x -a '(__girmolet_expression trace)' -d 'The same as -e trace=SET'
complete -c strace_cli -l inject -x -a '(__girmolet_expression inject)' -d 'The same as -e inject=SET:PARTS'
complete -c strace_cli -l fault -x -a '(__girmolet_expression fault)' -d 'The same as -e fault=SET[:PARTS]'
complete -c strace_cli -s o -l output -r -F -d 'Writes the trace to this file'
complete -c strace_cli -s s -l string-limit -x -d 'The most bytes of a string that are shown, 0 to 4096'
complete -c strace_cli -s a -l columns -x -d 'The column of results, 0 to 200'
complete -c strace_cli -l host -r -F -d 'Starts this program, as guest_host, with the word serve to run the kernel'
complete -c strace_cli -l host-arg -x -d 'Hands this word to the host after serve, any number of times'
complete -c strace_cli -l host-timeout -x -d 'Ends the run where the host says nothing for so long'
complete -c strace_cli -l turns -r -F -d 'A schedule by words, as 1 -2 s 1.'
complete -c strace_cli -l workers -x -d 'Makes the turns on N threads, 1 to 8, in an order of their own'
complete -c strace_cli -l turns-out -r -F -d 'Writes the events of the run to this file, as --turns takes them'
complete -c strace_cli -l limit -x -d 'Ends the run after N events, turns and requests'
complete -c strace_cli -l explain -d 'Explains faults in further lines, as at a terminal'
complete -c strace_cli -l file -x -a '(__girmolet_file)' -d 'A file of the guest\'s, and the file that holds its content'
complete -c strace_cli -l dir -x -a '(__girmolet_file)' -d 'Files of the guest\'s: all that this directory holds, and those below it'
complete -c strace_cli -s E -l env -x -d 'Sets a variable of the guest\'s environment, which is empty without it'
complete -c strace_cli -l files-out -x -a '(__fish_complete_directories)' -d 'Writes the files that a complete run leaves to this directory, which is empty'
complete -c strace_cli -l files-list -r -F -d 'Lists the files that a complete run leaves, each as its length and its path'
complete -c strace_cli -s h -l help -d 'Print help'
complete -c strace_cli -s V -l version -d 'Print the version'
complete -c strace_sweep -s f -l follow-forks -d 'Makes the calls of children fail too'
complete -c strace_sweep -s e -x -a '(__girmolet_faults)' -d 'Which calls fail, as fault=write:error=EIO,ENOSPC'
complete -c strace_sweep -l fault -x -a '(__girmolet_faults fault)' -d 'The same as -e fault=SET[:error=E,..]'
complete -c strace_sweep -l errors -x -a 'possible all' -d 'possible, or all that the manual page of a call gives but for faulty arguments'
complete -c strace_sweep -l format -x -a 'table json junit' -d 'table, json: an object a line, or junit: a case a call'
complete -c strace_sweep -l each -d 'Tells each run in a line of its own, as soon as it is made'
complete -c strace_sweep -l all -d 'Tells also of runs that were reported, recovered or ignored'
complete -c strace_sweep -s o -l output -r -F -d 'Writes the report to this file'
complete -c strace_sweep -l turns -r -F -d 'A schedule by words, as 1 2 1.'
complete -c strace_sweep -l orders -x -d 'Tries N orders of turns, 1 to 1000000, without a failure, and tells each result once'
complete -c strace_sweep -l seed -x -d 'Draws orders by chance from this number on'
complete -c strace_sweep -l keep -x -a '(__fish_complete_directories)' -d 'Writes an order of each result to a file of this directory, as --turns takes it'
complete -c strace_sweep -l one -d 'Asks that all orders of --orders have one result: with two the status is 1'
complete -c strace_sweep -l known -r -F -d 'A line a finding that doesn\'t count: word, call, function or -, and path, as LOST write - /b'
complete -c strace_sweep -l known-out -r -F -d 'Writes such a line for each finding to this file'
complete -c strace_sweep -l shard -x -d 'Makes every Nth of the runs, from the Kth on'
complete -c strace_sweep -l fail-fast -d 'Makes no more runs once one is a finding that isn\'t known'
complete -c strace_sweep -l max-runs -x -d 'Makes N runs at most, those first that are likely to show something new'
complete -c strace_sweep -l time -x -d 'Begins no more runs once so many seconds are over'
complete -c strace_sweep -l check -x -d 'Runs this command of the shell where the files of each outcome are'
complete -c strace_sweep -l then -x -d 'Starts this program on the files that stop=, kill=, full=.. leave'
complete -c strace_sweep -l strict -d 'Takes runs that were damaged or warned for findings too'
complete -c strace_sweep -l cases -r -F -d 'Sweeps a case a line: its name, its input as <PATH, further options, and further words behind --'
complete -c strace_sweep -l runs -r -F -d 'Makes those runs alone that this file names, a line each, as write:EIO:2'
complete -c strace_sweep -l show -x -a '(__girmolet_row)' -d 'Shows one run as strace shows it, as write:EIO:2, and what it leaves'
complete -c strace_sweep -l jobs -x -d 'Makes the runs on N threads, 1 to 8'
complete -c strace_sweep -l limit -x -d 'Ends each run after N turns'
complete -c strace_sweep -l explain -d 'Explains faults in further lines, as at a terminal'
complete -c strace_sweep -l file -x -a '(__girmolet_file)' -d 'A file of the guest\'s, and the file that holds its content'
complete -c strace_sweep -l dir -x -a '(__girmolet_file)' -d 'Files of the guest\'s: all that this directory holds, and those below it'
complete -c strace_sweep -s E -l env -x -d 'Sets a variable of the guest\'s environment, which is empty without it'
complete -c strace_sweep -s h -l help -d 'Print help'
complete -c strace_sweep -s V -l version -d 'Print the version'
complete -c guest_host -n '__fish_seen_subcommand_from plain' -s e -x -a '(__girmolet_expression)' -d 'A tampering expression, as fault=write:error=EIO'
complete -c guest_host -n '__fish_seen_subcommand_from plain' -l inject -x -a '(__girmolet_expression inject)' -d 'The same as -e inject=SET:PARTS'
complete -c guest_host -n '__fish_seen_subcommand_from plain' -l fault -x -a '(__girmolet_expression fault)' -d 'The same as -e fault=SET[:PARTS]'
complete -c guest_host -n '__fish_seen_subcommand_from plain' -l turns -r -F -d 'A schedule by words, as 1 2 1.'
complete -c guest_host -n '__fish_seen_subcommand_from plain' -l limit -x -d 'Ends the run after N turns'
complete -c guest_host -n '__fish_seen_subcommand_from plain' -l explain -d 'Explains faults in further lines, as at a terminal'
complete -c guest_host -n '__fish_seen_subcommand_from plain' -l file -x -a '(__girmolet_file)' -d 'A file of the guest\'s, and the file that holds its content'
complete -c guest_host -n '__fish_seen_subcommand_from plain' -l dir -x -a '(__girmolet_file)' -d 'Files of the guest\'s: all that this directory holds, and those below it'
complete -c guest_host -n '__fish_seen_subcommand_from plain' -s E -l env -x -d 'Sets a variable of the guest\'s environment, which is empty without it'
complete -c guest_host -n '__fish_seen_subcommand_from plain' -l files-out -x -a '(__fish_complete_directories)' -d 'Writes the files that a complete run leaves to this directory, which is empty'
complete -c guest_host -n '__fish_seen_subcommand_from plain' -l files-list -r -F -d 'Lists the files that a complete run leaves, each as its length and its path'
complete -c guest_host -s h -l help -d 'Print help'
complete -c strace_cli -n 'contains -- -- (commandline -opc)' -x -a '(__girmolet_guests)'
complete -c strace_sweep -n 'contains -- -- (commandline -opc)' -x -a '(__girmolet_guests)'
complete -c guest_host -n 'contains -- -- (commandline -opc)' -x -a '(__girmolet_guests)'
complete -c guest_host -n __fish_use_subcommand -x -a 'plain asm serve'
complete -c guest_host -n __fish_use_subcommand -s V -l version -d 'Print the version'
