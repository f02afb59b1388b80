# include() this after -DMITTENLOAD=FOLDER, the folder of libmittenload.a: target/link, or target/link/TARGET for another processor. Then
# target_link_libraries(PROGRAM mittenload).
add_library(mittenload STATIC IMPORTED)
set_target_properties(mittenload PROPERTIES IMPORTED_LOCATION "${MITTENLOAD}/libmittenload.a" INTERFACE_INCLUDE_DIRECTORIES "${CMAKE_CURRENT_LIST_DIR}")
