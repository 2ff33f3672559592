$c ( ) \bot \top \imp \not \and \or \eq \mem \fun \ex \all \app \at \next \ev #Pattern #Sort #Var #Sub #Fresh #Pred |- $.
$v p q r t u x y s v $.
fp $f #Pattern p $.
fq $f #Pattern q $.
fr $f #Pattern r $.
ft $f #Pattern t $.
fu $f #Pattern u $.
fx $f #Var x $.
fy $f #Var y $.
fs $f #Sort s $.
fv $f #Sort v $.
w.var $a #Pattern x $.
w.bot $a #Pattern \bot $.
w.top $a #Pattern \top $.
w.imp $a #Pattern ( \imp p q ) $.
w.and $a #Pattern ( \and p q ) $.
w.or $a #Pattern ( \or p q ) $.
w.eq $a #Pattern ( \eq p q ) $.
w.mem $a #Pattern ( \mem p q ) $.
w.app $a #Pattern ( \app p q ) $.
w.not $a #Pattern ( \not p ) $.
w.next $a #Pattern ( \next p ) $.
w.ev $a #Pattern ( \ev p ) $.
w.at $a #Pattern ( \at p s ) $.
w.fun $a #Pattern ( \fun p s ) $.
w.ex $a #Pattern ( \ex x s p ) $.
w.all $a #Pattern ( \all x s p ) $.
${
$d x p $.
fr.d $a #Fresh x p $.
$}
${
fr.imp.1 $e #Fresh x p $.
fr.imp.2 $e #Fresh x q $.
fr.imp $a #Fresh x ( \imp p q ) $.
$}
${
fr.and.1 $e #Fresh x p $.
fr.and.2 $e #Fresh x q $.
fr.and $a #Fresh x ( \and p q ) $.
$}
${
fr.or.1 $e #Fresh x p $.
fr.or.2 $e #Fresh x q $.
fr.or $a #Fresh x ( \or p q ) $.
$}
${
fr.eq.1 $e #Fresh x p $.
fr.eq.2 $e #Fresh x q $.
fr.eq $a #Fresh x ( \eq p q ) $.
$}
${
fr.mem.1 $e #Fresh x p $.
fr.mem.2 $e #Fresh x q $.
fr.mem $a #Fresh x ( \mem p q ) $.
$}
${
fr.app.1 $e #Fresh x p $.
fr.app.2 $e #Fresh x q $.
fr.app $a #Fresh x ( \app p q ) $.
$}
${
fr.not.1 $e #Fresh x p $.
fr.not $a #Fresh x ( \not p ) $.
$}
${
fr.next.1 $e #Fresh x p $.
fr.next $a #Fresh x ( \next p ) $.
$}
${
fr.ev.1 $e #Fresh x p $.
fr.ev $a #Fresh x ( \ev p ) $.
$}
${
fr.at.1 $e #Fresh x p $.
fr.at $a #Fresh x ( \at p s ) $.
$}
${
fr.fun.1 $e #Fresh x p $.
fr.fun $a #Fresh x ( \fun p s ) $.
$}
${
fr.ex.1 $e #Fresh x p $.
fr.ex $a #Fresh x ( \ex y s p ) $.
$}
${
fr.all.1 $e #Fresh x p $.
fr.all $a #Fresh x ( \all y s p ) $.
$}
fr.exb $a #Fresh x ( \ex x s p ) $.
fr.allb $a #Fresh x ( \all x s p ) $.
su.v $a #Sub u x u x $.
${
su.f.1 $e #Fresh x p $.
su.f $a #Sub p p u x $.
$}
${
su.imp.1 $e #Sub t p u x $.
su.imp.2 $e #Sub r q u x $.
su.imp $a #Sub ( \imp t r ) ( \imp p q ) u x $.
$}
${
su.and.1 $e #Sub t p u x $.
su.and.2 $e #Sub r q u x $.
su.and $a #Sub ( \and t r ) ( \and p q ) u x $.
$}
${
su.or.1 $e #Sub t p u x $.
su.or.2 $e #Sub r q u x $.
su.or $a #Sub ( \or t r ) ( \or p q ) u x $.
$}
${
su.eq.1 $e #Sub t p u x $.
su.eq.2 $e #Sub r q u x $.
su.eq $a #Sub ( \eq t r ) ( \eq p q ) u x $.
$}
${
su.mem.1 $e #Sub t p u x $.
su.mem.2 $e #Sub r q u x $.
su.mem $a #Sub ( \mem t r ) ( \mem p q ) u x $.
$}
${
su.app.1 $e #Sub t p u x $.
su.app.2 $e #Sub r q u x $.
su.app $a #Sub ( \app t r ) ( \app p q ) u x $.
$}
${
su.not.1 $e #Sub t p u x $.
su.not $a #Sub ( \not t ) ( \not p ) u x $.
$}
${
su.next.1 $e #Sub t p u x $.
su.next $a #Sub ( \next t ) ( \next p ) u x $.
$}
${
su.ev.1 $e #Sub t p u x $.
su.ev $a #Sub ( \ev t ) ( \ev p ) u x $.
$}
${
su.at.1 $e #Sub t p u x $.
su.at $a #Sub ( \at t s ) ( \at p s ) u x $.
$}
${
su.fun.1 $e #Sub t p u x $.
su.fun $a #Sub ( \fun t s ) ( \fun p s ) u x $.
$}
${
$d x y $.
su.ex.1 $e #Fresh y u $.
su.ex.2 $e #Sub t p u x $.
su.ex $a #Sub ( \ex y s t ) ( \ex y s p ) u x $.
$}
${
$d x y $.
su.all.1 $e #Fresh y u $.
su.all.2 $e #Sub t p u x $.
su.all $a #Sub ( \all y s t ) ( \all y s p ) u x $.
$}
pr.bot $a #Pred \bot $.
pr.top $a #Pred \top $.
${
pr.imp.1 $e #Pred p $.
pr.imp.2 $e #Pred q $.
pr.imp $a #Pred ( \imp p q ) $.
$}
${
pr.and.1 $e #Pred p $.
pr.and.2 $e #Pred q $.
pr.and $a #Pred ( \and p q ) $.
$}
${
pr.or.1 $e #Pred p $.
pr.or.2 $e #Pred q $.
pr.or $a #Pred ( \or p q ) $.
$}
${
pr.not.1 $e #Pred p $.
pr.not $a #Pred ( \not p ) $.
$}
pr.eq $a #Pred ( \eq p q ) $.
pr.mem $a #Pred ( \mem p q ) $.
pr.fun $a #Pred ( \fun p s ) $.
${
pr.ex.1 $e #Pred p $.
pr.ex $a #Pred ( \ex x s p ) $.
$}
${
pr.all.1 $e #Pred p $.
pr.all $a #Pred ( \all x s p ) $.
$}
p.1 $a |- ( \imp p ( \imp q p ) ) $.
p.2 $a |- ( \imp ( \imp p ( \imp q r ) ) ( \imp ( \imp p q ) ( \imp p r ) ) ) $.
p.3 $a |- ( \imp ( \imp ( \imp p \bot ) \bot ) p ) $.
${
mp.1 $e |- p $.
mp.2 $e |- ( \imp p q ) $.
mp $a |- q $.
$}
not.1 $a |- ( \imp ( \not p ) ( \imp p \bot ) ) $.
not.2 $a |- ( \imp ( \imp p \bot ) ( \not p ) ) $.
and.1 $a |- ( \imp ( \and p q ) p ) $.
and.2 $a |- ( \imp ( \and p q ) q ) $.
and.3 $a |- ( \imp p ( \imp q ( \and p q ) ) ) $.
or.1 $a |- ( \imp p ( \or p q ) ) $.
or.2 $a |- ( \imp q ( \or p q ) ) $.
or.3 $a |- ( \imp ( \imp p r ) ( \imp ( \imp q r ) ( \imp ( \or p q ) r ) ) ) $.
top $a |- \top $.
${
inst.1 $e #Sub r p q x $.
inst $a |- ( \imp ( \all x s p ) ( \imp ( \fun q s ) r ) ) $.
$}
${
$d y p $.
fun.ex $a |- ( \imp ( \ex y s ( \eq y p ) ) ( \fun p s ) ) $.
$}
${
ex.el.1 $e |- ( \imp ( \fun x s ) ( \imp p q ) ) $.
ex.el.2 $e #Fresh x q $.
ex.el $a |- ( \imp ( \ex x s p ) q ) $.
$}
eq.refl $a |- ( \eq p p ) $.
${
eq.el.1 $e #Sub t r p x $.
eq.el.2 $e #Sub u r q x $.
eq.el $a |- ( \imp ( \eq p q ) ( \imp t u ) ) $.
$}
${
eq.in.1 $e |- ( \imp p q ) $.
eq.in.2 $e |- ( \imp q p ) $.
eq.in $a |- ( \eq p q ) $.
$}
mem.in $a |- ( \imp ( \fun p s ) ( \mem p p ) ) $.
${
mem.no.1 $e #Pred r $.
mem.no.2 $e |- ( \imp r ( \not ( \and p q ) ) ) $.
mem.no $a |- ( \imp r ( \not ( \mem p q ) ) ) $.
$}
apart $a |- ( \imp ( \fun p s ) ( \imp ( \fun q v ) ( \imp ( \not ( \eq p q ) ) ( \not ( \and p q ) ) ) ) ) $.
${
app.l.1 $e #Pred r $.
app.l.2 $e |- ( \imp r ( \imp p q ) ) $.
app.l $a |- ( \imp r ( \imp ( \app p t ) ( \app q t ) ) ) $.
$}
${
app.r.1 $e #Pred r $.
app.r.2 $e |- ( \imp r ( \imp p q ) ) $.
app.r $a |- ( \imp r ( \imp ( \app t p ) ( \app t q ) ) ) $.
$}
bot.l $a |- ( \imp ( \app \bot p ) \bot ) $.
bot.r $a |- ( \imp ( \app p \bot ) \bot ) $.
${
next.in.1 $e |- ( \imp p q ) $.
next.in $a |- ( \imp ( \next p ) ( \next q ) ) $.
$}
ev.1 $a |- ( \imp p ( \ev p ) ) $.
ev.2 $a |- ( \imp ( \next ( \ev p ) ) ( \ev p ) ) $.
${
ev.kt.1 $e |- ( \imp p q ) $.
ev.kt.2 $e |- ( \imp ( \next q ) q ) $.
ev.kt $a |- ( \imp ( \ev p ) q ) $.
$}
$c f:a $.
n.0 $a #Pattern f:a $.
${
$v m:0 $.
m.0.0 $f #Pattern m:0 $.
$v m:2 $.
m.0.2 $f #Pattern m:2 $.
$v m:1 $.
m.0.1 $f #Pattern m:1 $.
e.0.0 $e |- ( \imp m:0 ( \ev m:1 ) ) $.
e.0.1 $e |- ( \imp m:1 ( \next m:2 ) ) $.
t.0 $p |- ( \imp m:0 ( \ev m:2 ) ) $= ( w.ev w.imp w.next ev.1 next.in ev.2 p.1 mp p.2 ev.kt ) ACFZGZABFZGZDAPRGZGZQSGTUACRCBHZGZCRGZECUBRGZGZUCUDGUEUFUBRHZGZUEBRBIJUBUGRGZGZUHUEGUIUJBKZUIUBLMUBUGRNMMUECLMCUBRNMMUKOTALMAPRNMM $.
$}
t.1 $p |- ( \imp f:a ( \ev f:a ) ) $= ( n.0 ev.1 ) AB $.
$c f:b $.
n.1 $a #Pattern f:b $.
t.2 $a |- ( \imp ( \and f:a \top ) ( \next f:b ) ) $.
t.3 $p |- ( \imp f:a ( \next f:b ) ) $= ( n.0 w.top w.and w.imp n.1 w.next top p.1 mp and.3 p.2 t.2 ) AABCZDZAEFZDZABDZNBQGBAHIABMDDQNDABJABMKIIAMODZDZNPDRSLRAHIAMOKII $.
t.4 $p |- ( \imp f:a ( \ev f:b ) ) $= ( n.0 n.1 t.1 t.3 t.0 ) ABACDE $.
$c f:c $.
n.2 $a #Pattern f:c $.
t.5 $a |- ( \imp ( \and f:b \top ) ( \next f:c ) ) $.
t.6 $p |- ( \imp f:b ( \next f:c ) ) $= ( n.1 w.top w.and w.imp n.2 w.next top p.1 mp and.3 p.2 t.5 ) AABCZDZAEFZDZABDZNBQGBAHIABMDDQNDABJABMKIIAMODZDZNPDRSLRAHIAMOKII $.
t.7 $p |- ( \imp f:a ( \ev f:c ) ) $= ( n.0 n.2 n.1 t.4 t.6 t.0 ) ABCDEF $.
