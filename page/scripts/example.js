// The sheet of a first visit: three labels are given, the guesses where a name has three parts are wrong, and one row has no city.

export const EXAMPLE = {
    name: "people.csv",
    text: `Name,Mail,City,Label
Ada Byron,ada@lyra.org,London,Byron (London)
Max Planck,max.p@quanta.de,Kiel,
Lise Meitner,lise@fission.at,Graz,Meitner (Graz)
Emmy A Noether,emmy.n@ring.de,Erlangen,
Carl Gauss,carl@curve.de,Kassel,
Emil Artin,artin@ring.de,,
Marie Curie,marie@radium.fr,Paris,
Kurt Gödel,kurt@proof.at,Brno,
Ada M Turing,a.turing@machine.uk,London,
Niels Bohr,niels@orbit.dk,Kopenhagen,Bohr (Kopenhagen)
Sofia Kowalewski,sofia@wave.se,Stockholm,
Otto R Frisch,otto@split.uk,Wien,
`,
    sources: [1, 3],
};
