" Colours for bundles, HAIL scripts and client scripts of Mu. See tools/README.md for how to install them.
" The lists of words are compared with those of the program by scripts/check_tools.
if exists("b:current_syntax")
  finish
endif

syn case match
syn iskeyword @,48-57,_

syn match muComment "//.*$" contains=muTodo
syn keyword muTodo contained TODO FIXME XXX

syn match muGlobal "@[A-Za-z0-9_.-]\+"
syn match muLocal "%[A-Za-z0-9_.-]\+"
syn match muObject "\$[A-Za-z0-9_.-]\+"
syn match muNumber "[+-]\?\<\%(0x\x\+\|0\o*\|[1-9]\d*\)\>"
syn match muBlock "^\s*%[A-Za-z0-9_.-]\+\ze\s*\%((.*)\)\?\s*\%(\[.*\]\)\?\s*:"

syn match muDirective "\%(\.typedef\|\.funcsig\|\.const\|\.global\|\.funcdecl\|\.funcdef\|\.new\|\.newhybrid\|\.init\)\>"
syn match muCommon "\%(@uvm\.futex\.wait_timeout\|@uvm\.set_threadlocal\|@uvm\.get_threadlocal\|@uvm\.current_stack\|@uvm\.thread_exit\|@uvm\.kill_stack\|@uvm\.futex\.wait\|@uvm\.futex\.wake\|@uvm\.new_stack\)[A-Za-z0-9_.-]\@!"
syn match muLeftOut "\%(\.expose\)\>"

syn keyword muType int struct array hybrid void ref iref funcref stackref threadref
syn keyword muOrder NOT_ATOMIC RELAXED CONSUME ACQUIRE RELEASE ACQ_REL SEQ_CST
syn keyword muOperation ADD SUB MUL SDIV SREM UDIV UREM SHL LSHR ASHR AND OR XOR EQ NE SLT SLE SGT SGE ULT ULE UGT UGE TRUNC ZEXT
syn keyword muOperation SEXT REFCAST SELECT EXTRACTVALUE INSERTVALUE NEW NEWHYBRID ALLOCA GETIREF GETFIELDIREF GETELEMIREF
syn keyword muOperation SHIFTIREF GETVARPARTIREF LOAD STORE CMPXCHG ATOMICRMW FENCE TRAP SWAPSTACK NEWTHREAD COMMINST
syn keyword muBranch BRANCH BRANCH2 SWITCH CALL TAILCALL RET THROW WATCHPOINT WPBRANCH
syn keyword muUpdate XCHG NAND MAX MIN UMAX UMIN
syn keyword muClause VERSION EXC WPEXC KEEPALIVE RET_WITH PASS_VALUES THROW_EXC KILL_OLD THREADLOCAL WEAK NULL
syn keyword muClient frames kept watch unwatch pop push pass throw rebind exit stop
syn keyword muLeftOut float double vector weakref uptr ufuncptr tagref64 framecursorref irbuilderref CCALL ALLOCAHYBRID
syn keyword muLeftOut EXTRACTELEMENT INSERTELEMENT SHUFFLEVECTOR BITCAST PTRCAST FADD FSUB FMUL FDIV FREM FPTRUNC FPEXT FPTOUI
syn keyword muLeftOut FPTOSI UITOFP SITOFP FTRUE FFALSE FUNO FUEQ FUNE FULT FULE FUGT FUGE FORD FOEQ FONE FOLT FOLE FOGT FOGE

hi def link muComment Comment
hi def link muTodo Todo
hi def link muGlobal Identifier
hi def link muLocal Special
hi def link muObject Special
hi def link muNumber Number
hi def link muBlock Label
hi def link muDirective PreProc
hi def link muCommon Function
hi def link muType Type
hi def link muOrder StorageClass
hi def link muOperation Statement
hi def link muBranch Conditional
hi def link muUpdate Statement
hi def link muClause Keyword
hi def link muClient Keyword
hi def link muLeftOut Error

let b:current_syntax = "mu"
