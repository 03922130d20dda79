//! Rows without faults, as tables.
use std::collections::HashMap;

/// A declaration of a dependency.
#[derive(Clone, Debug, PartialEq, Eq)]
pub struct Declaration {
    /// 0 for normal use, 1 for the build script, 2 for development.
    pub kind: usize,
    /// Whether the dependency is optional.
    pub is_optional: bool,
    /// The platform's spec, or `None` for every platform.
    pub platform: Option<String>,
    /// Whether it asks for default features.
    pub has_default: bool,
    /// The listed features.
    pub features: Vec<String>,
}

/// A package.
#[derive(Clone, Debug)]
pub struct Package {
    /// Its id.
    pub id: String,
    /// Whether it belongs to the workspace.
    pub in_workspace: bool,
    /// The named features with their items, in row order.
    pub features: Vec<(String, Vec<String>)>,
    /// The names with an optional declaration, by the first row of each.
    pub optional: Vec<String>,
}

/// All declarations of one package for another.
#[derive(Clone, Debug)]
pub struct PackageLink {
    /// The package that declares.
    pub from: usize,
    /// The package that is depended on.
    pub to: usize,
    /// The name of the dependency.
    pub name: String,
    /// The declarations in row order.
    pub declarations: Vec<Declaration>,
}

/// Packages and links in row order.
#[derive(Clone, Debug, Default)]
pub struct Tables {
    /// The packages.
    pub packages: Vec<Package>,
    /// The links, by the first row of each.
    pub links: Vec<PackageLink>,
    /// The numbers of the links that leave each package.
    pub leaving: Vec<Vec<usize>>,
    ids: HashMap<String, usize>,
    pairs: HashMap<(usize, usize), usize>,
}

impl Package {
    /// Returns whether the package has this named feature.
    pub fn has(&self, feature: &str) -> bool {
        self.features.iter().any(|(name, _)| name == feature)
    }
}

impl Tables {
    /// Returns the tables of rows without faults.
    pub fn of(rows: &str) -> Tables {
        let lines: Vec<Vec<&str>> = rows
            .split('\n')
            .filter(|line| !line.is_empty() && !line.starts_with('#'))
            .map(|line| line.split('\t').collect())
            .collect();
        let mut tables = Tables::default();
        for fields in &lines {
            tables.add_package_or_feature(fields);
        }
        let mut last = 0;
        for fields in &lines {
            match fields[0] {
                "package" => last = tables.package(fields[1]),
                "dep" => tables.add_declaration(last, &fields[1..]),
                _ => {}
            }
        }
        tables
    }

    fn package(&self, id: &str) -> usize {
        *self.ids.get(id).expect("a row names a package of the rows")
    }

    fn add_package_or_feature(&mut self, fields: &[&str]) {
        match fields[0] {
            "package" => {
                self.ids.insert(fields[1].to_owned(), self.packages.len());
                self.leaving.push(Vec::new());
                self.packages.push(Package {
                    id: fields[1].to_owned(),
                    in_workspace: fields[2] == "workspace",
                    features: Vec::new(),
                    optional: Vec::new(),
                });
            }
            "feature" => {
                let items = fields[2..].iter().map(|it| (*it).to_owned()).collect();
                let package = self.packages.last_mut().expect("a package row is first");
                package.features.push((fields[1].to_owned(), items));
            }
            _ => {}
        }
    }

    fn add_declaration(&mut self, from: usize, fields: &[&str]) {
        let to = self.package(fields[1]);
        let declaration = Declaration {
            kind: ["normal", "build", "dev"].iter().position(|it| *it == fields[2]).expect("a kind"),
            is_optional: fields[3] == "optional",
            platform: (fields[4] != "*").then(|| fields[4].to_owned()),
            has_default: fields[5] == "default",
            features: fields[6..].iter().map(|it| (*it).to_owned()).collect(),
        };
        let name = fields[0].to_owned();
        if declaration.is_optional && !self.packages[from].optional.contains(&name) {
            self.packages[from].optional.push(name.clone());
        }
        let number = *self.pairs.entry((from, to)).or_insert_with(|| {
            self.leaving[from].push(self.links.len());
            self.links.push(PackageLink { from, to, name, declarations: Vec::new() });
            self.links.len() - 1
        });
        self.links[number].declarations.push(declaration);
    }
}
