" Vim compiler file for PEARL 90, made by editor/make.py: `:compiler pearl`, then `:make`.
if exists("current_compiler")
  finish
endif
let current_compiler = "pearl"
let s:tool = fnamemodify(resolve(expand('<sfile>:p')), ':h:h:h:h') . '/tools/explain'
execute 'CompilerSet makeprg=' . escape(s:tool . ' --check %', ' ')
CompilerSet errorformat=%f:%l:%v:\ %m
