" Vim syntax file for PEARL 90, made by editor/make.py.
if exists("b:current_syntax")
  finish
endif
syntax case match
syntax match pearlName /\<[A-Za-z]\w*\>/
syntax match pearlNumber /\<\d\+\>/
syntax match pearlNumber /\<\d\+\.\d\{1,3}\>/
syntax match pearlNumber /\<\d\+:\d\+:\d\+\(\.\d\{1,3}\)\?\>/
syntax match pearlText /'\([ -&(-~]\|''\)*'/
syntax match pearlBits /'[0-9A-F]\+'B[1-4]\?\>/
syntax keyword pearlParts MODULE MODEND SYSTEM PROBLEM
syntax keyword pearlDeclarations DECLARE DCL SPECIFY SPC TYPE LENGTH TASK PROCEDURE PROC RETURNS
syntax keyword pearlAttributes INV INIT PRESET MAIN PRIORITY PRIO IDENTICAL IDENT IN OUT INOUT ALPHIC BASIC GLOBAL
syntax keyword pearlTypes FIXED BIT CHARACTER CHAR CLOCK DURATION DUR STRUCT SEMA INTERRUPT IRPT DATION BOLT
syntax keyword pearlBranches IF THEN ELSE FIN CASE ALT
syntax keyword pearlLoops FOR FROM BY TO WHILE REPEAT EXIT
syntax keyword pearlBlocks BEGIN END CALL RETURN
syntax keyword pearlTasking ACTIVATE TERMINATE SUSPEND CONTINUE RESUME PREVENT AT AFTER ALL UNTIL DURING WHEN REQUEST RELEASE TRY ENABLE DISABLE TRIGGER RESERVE FREE ENTER LEAVE
syntax keyword pearlTransfers GET PUT TAKE SEND
syntax keyword pearlOperators NOW REM ABS SIGN EQ NE LT GT LE GE AND OR EXOR NOT CAT CSHIFT SHIFT LWB UPB
syntax keyword pearlUnits HRS MIN SEC
syntax match pearlComment /!.*$/
syntax region pearlComment start=/\/\*/ end=/\*\//
highlight default link pearlParts Structure
highlight default link pearlDeclarations Keyword
highlight default link pearlAttributes StorageClass
highlight default link pearlTypes Type
highlight default link pearlBranches Conditional
highlight default link pearlLoops Repeat
highlight default link pearlBlocks Statement
highlight default link pearlTasking Statement
highlight default link pearlTransfers Statement
highlight default link pearlOperators Operator
highlight default link pearlUnits Number
highlight default link pearlNumber Number
highlight default link pearlBits Number
highlight default link pearlText String
highlight default link pearlComment Comment
let b:current_syntax = "pearl"
