# The extension stands beside this file where it is installed, and in this repository where it was built, proved or not.
package ifneeded tktext 2.0 [list load [apply {folder {
    foreach built {. ../out ../out/try} {
        set file [file join $folder $built tktext.so]
        if {[file exists $file]} {
            return $file
        }
    }
    return [file join $folder tktext.so]
}} $dir] Tktext]
