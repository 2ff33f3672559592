$c |- wff ( -> ) $.
$v p q $.
wp $f wff p $.
wq $f wff q $.
wi $a wff ( p -> q ) $.
ax $a |- ( p -> p ) $.
${
  minor $e |- p $.
  major $e |- ( p -> q ) $.
  mp $a |- q $.
$}
th $p |- ( ( p -> q ) -> ( p -> q ) ) $= wp wp wq wi ax $.
