import java.util.*; class Depot {
record Parcel( ) {
} <T> List joined( T ... parts) {
        List all = new ArrayList ();
return all;
    }
List urgent() {
        List<Parcel> city = List.of() ;
List all = joined(city ) ;
return all;
    }
}
