\\ Prints the value of each line of a file, in 25 digits: gp -q examples/notation/values.gp < /dev/null, with the file's name in the
\\ environment as LINES. The lines are those that examples/notation/notation.py to gp writes.
\\ In zetamult([k1,..,kr]) n1 > .. > nr, as in z(k1,..,kr) of mzv.
default(realprecision, 38);
{
    foreach(readstr(getenv("LINES")), line,
        printf("%.25g\n", eval(line)));
}
