# Prints paragraphs of Spanish, one a line, to measure the programs on:
#
#     awk -v n=40000 -f tools/make-paragraphs.awk >FILE
#
# Each has 80 to 4,000 code points, some 2,000 on average, so that 40,000 are about 80 million. All are accepted by the rules of paper 01 and
# already normalised: reading the rows back gives the same file. The same n gives the same paragraphs, on any awk; -v seed=2 gives others (1 to 2147483646).
#
# A paragraph is sentences of the list below with a blank between two. To add one: its pairs are closed within it, and each # becomes a number of
# one to four digits, so what stands beside the # must be accepted for any.
BEGIN {
    if (n == "") n = 10
    if (seed == "") seed = 1

    add("La mañana empezó con una niebla tan espesa que nadie veía el otro lado de la plaza.")
    add("Sobre la mesa había # libros, dos cuadernos de tapas azules y una lámpara que ya no daba luz.")
    add("Mi abuela decía que las palabras, como el pan, hay que repartirlas mientras están calientes.")
    add("¿Quién ha dejado abierta la ventana del pasillo?")
    add("El tren de las 7:30 llegó con # minutos de retraso, y en el andén apenas quedaban viajeros.")
    add("—No te preocupes —contestó el maestro—, que todavía hay tiempo de sobra.")
    add("¡Cuánto echaba de menos el ruido del mar!")
    add("En el 2.º piso vivía un relojero; en el 3.º, una profesora de música que ensayaba por las noches.")
    add("Según la encuesta, el 37,5 % de los alumnos prefiere leer en casa, y el resto, en la biblioteca.")
    add("Compraron 3⁄4 de kilo de nueces, 1⁄2 de almendras y un tarro de miel.")
    add("La ONCE publicó aquel año 1.250 títulos en braille.")
    add("«Las cosas que se aprenden despacio —escribió— tardan mucho más en olvidarse».")
    add("Todo estaba en silencio.")
    add("Después de la tormenta, los niños salieron a buscar caracoles entre las piedras mojadas del camino viejo.")
    add("Nadie supo explicar por qué el pingüino del cuento quería aprender a silbar.")
    add("El autobús número # pasa cada cuarto de hora, salvo los domingos y los días de fiesta.")
    add("Hacia el siglo XVI, aquel pueblo tenía # vecinos, tres molinos y un puente de madera.")
    add("Llevaba en el bolsillo una carta sin abrir, un lápiz mordido y la llave de una casa que ya no existía.")
    add("¿Y si volviéramos por el otro lado del río, aunque se tarde un poco más?")
    add("La receta (la de siempre, la de los domingos) pedía # gramos de harina y una pizca de sal.")
    add("En la puerta había un cartel: «Se ruega no hacer ruido».")
    add("No es lo mismo ‘aún’ que ‘aun’; la tilde, a veces, lo cambia todo.")
    add("Aquel invierno nevó tanto que tuvimos que salir de la casa por la ventana de la cocina.")
    add("El precio subió de 12,40 a 15,75 €, y aun así se vendieron # ejemplares.")
    add("Primero se oyó un golpe; después, unos pasos; al final, una risa que nadie esperaba.")
    add("La bibliotecaria guardaba los mapas más antiguos en un armario estrecho, lejos de la luz y de la humedad.")
    add("Íñigo, Úrsula y Ángel llegaron los últimos.")
    add("¡Ven, corre, que ya empieza!")
    add("En la página # se cuenta cómo el río cambió de cauce y dejó el molino en medio de un campo de trigo.")
    add("Tres veces llamó a la puerta, y tres veces le contestó el eco.")
    add("La carretera, que antes pasaba por delante de la escuela, ahora da un rodeo de # kilómetros.")
    add("Cada tarde, a la misma hora, el cartero dejaba la bicicleta junto al pozo y se sentaba a descansar.")
    add("Dijo que volvería pronto... y tardó # años.")
    add("La 1.ª vez le temblaban las manos; la #.ª, ya ni se acordaba de tener miedo.")
    add("Un teclado de seis teclas basta para escribir cualquier página, por larga que sea.")
    add("Quedaban 2⁄3 del camino y la luz empezaba a faltar.")
    add("Al día siguiente amaneció despejado, con un aire limpio que olía a leña y a tierra recién removida.")
    add("—¿De verdad lo has leído entero? —preguntó ella, sorprendida.")
    add("Hay libros que se leen con los ojos, libros que se leen con los oídos y libros que se leen con los dedos.")
    add("Los # alumnos de 6.º B representaron una obra en la que todos los personajes eran relojes.")
    add("Por fin, cuando ya nadie la esperaba, llegó la respuesta: una sola hoja, escrita por las dos caras, sin fecha ni firma.")
    add("El agua del manantial, fría incluso en agosto, bajaba por una acequia de piedra hasta los huertos del valle.")

    # The last sentence of a paragraph may go past the length that is aimed at, by no more than the longest sentence.
    while (n-- > 0) {
        aim = 80 + int(random() * (4000 - longest - 80 + 1))
        points = 0
        do {
            if (points > 0) { printf " "; points++ }
            at = 1 + int(random() * sentences)
            points += fixed[at]
            for (part = 1; part < parts[at]; part++) {
                number = a_number()
                points += length(number "")
                printf "%s%d", text[at, part], number
            }
            printf "%s", text[at, part]
        } while (points < aim)
        printf "\n"
    }
}

# A number from 0 on and below 1. The product is below 2 to the 53rd, so every awk has it exactly.
function random() {
    seed = seed * 16807 % 2147483647
    return seed / 2147483647
}

# A number of at most one, two, three or four digits.
function a_number(  most) {
    for (most = 10; most < 10000 && random() < 0.6;) most *= 10
    return 1 + int(random() * (most - 1))
}

# A sentence: its parts between the places of a number, and how many code points these have together.
function add(sentence,  part, piece, most) {
    sentences++
    parts[sentences] = split(sentence, piece, "#")
    for (part = 1; part <= parts[sentences]; part++) {
        text[sentences, part] = piece[part]
        fixed[sentences] += code_points(piece[part])
    }
    most = fixed[sentences] + 4 * (parts[sentences] - 1)
    if (most > longest) longest = most
}

# An awk that counts bytes counts those of a sequence that are not its first, 128 to 191, as well.
function code_points(string,  at, count, byte) {
    if (length("ñ") == 1) return length(string)
    if (!(128 in within)) for (byte = 128; byte < 192; byte++) within[byte] = within[sprintf("%c", byte)] = 1
    for (at = 1; at <= length(string); at++) if (!(substr(string, at, 1) in within)) count++
    return count + 0
}
