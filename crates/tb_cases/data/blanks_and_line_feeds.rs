 fn
main ( ) {
print ! ( "a b" ) ;
} 
