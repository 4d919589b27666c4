rem Takes the library that the release has for the platform. Nothing is compiled.
xcopy /E /I include "%LIBRARY_INC%" || exit 1
xcopy /E /I lib "%LIBRARY_LIB%" || exit 1
