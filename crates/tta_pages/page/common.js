//# parts : the script that finds elements, and takes the text of stages apart into headings with their lines, and the lines of C beside these
const newline=String.fromCharCode(10);
const find=id=>document.getElementById(id);
function make(kind,look,...inner){
const element=document.createElement(kind);
element.className=look;
element.append(...inner);
return element;
}
function partsOf(text){
const parts=[];
for(const told of text.split(newline)){
const [line,place]=told.split(/ {2}; /),part=parts[parts.length-1];
if(line[0]==' ')part.places[part.lines.push(line.slice(1))-1]=place||'';
else if(line)parts.push({words:line.split(' '),lines:[],places:[]});
}
return parts;
}
const listed=line=>line.split(':')[1].trim().split(' ').filter(word=>word);
function originOf(words){
const kind=words[2],size={steps:6,entry:3,return:5}[kind],own=words.slice(2,2+size);
return {name:words[1],kind,proc:own[2],first:+own[4]||0,last:+own[5]||+own[4]||0,origin:own.join(' '),rest:words.slice(2+size)};
}
//# stages : the script that reads the parts: basic blocks, variables, register code, lists of moves, and the code
const readers={
block:(all,w,lines,places)=>all.blocks.push({proc:w[3],first:+w[8],last:+w[9],before:listed(lines[0]),after:listed(lines[lines.length-1]),
steps:lines.slice(1,-1).map(line=>/^line ([0-9]+) : (.*)$/.exec(line)).map((m,k)=>({line:+m[1],text:m[2],place:places[k+1]}))}),
variables:(all,w,lines)=>lines.forEach(line=>{
const [name,home,...span]=line.split(' '),at=[...line.matchAll(/entry|line ([0-9]+)/g)].map(m=>+m[1]||0);
all.variables.push({proc:w[2],name,home,first:at[0],last:at[1],span:span.join(' ')});
}),
//# code_readers : the script that reads register code, lists of moves, and the code, and then the whole text
code:(all,w,lines)=>{
const origin=originOf(w),block={...origin,address:+origin.rest[1],cycles:+origin.rest[3],steps:lines.slice(0,-2),exit:lines[lines.length-2],
live:listed(lines[lines.length-1]),lists:[],rows:[]};
all.code.push(block);
all.named.set(block.name,block);
},
list:(all,w,lines)=>{
const list=originOf(w),items=lines.filter(line=>!line.startsWith('live after'));
all.named.get(list.name).lists.push({what:list.rest.slice(0,-2).join(' '),items});
},
placed:(all,w,lines)=>{
all.named.get(w[1]).rows=lines.map(line=>/^([0-9]+) : (.*) ;$/.exec(line)).map(m=>({address:+m[1],text:m[2]}));
}};
function stagesOf(text){
const all={pair:'',blocks:[],variables:[],code:[],named:new Map()};
for(const part of partsOf(text))if(readers[part.words[0]])readers[part.words[0]](all,part.words,part.lines,part.places);else all.pair=part.words[1];
all.code.forEach((block,k)=>block.tint='tint'+k%6);
return all;
}
//# follow : the script that follows moves through the passes: which are changed, and which are left out and by what
const targetOf=text=>text.split(' -> ')[1];
function comesFrom(before,after,what){
const free=before.map(()=>true),whole=before.length==after.length&&/bypass|bound/.test(what),cut=/share|dead/.test(what);
let next=0;
return after.map((text,at)=>{
if(whole)return at;
const can=k=>free[k]&&(!cut||k>=next);
let from=before.findIndex((old,k)=>can(k)&&old==text);
if(from<0)from=before.findIndex((old,k)=>can(k)&&targetOf(old)==targetOf(text));
if(from>=0){free[from]=false;next=from+1;}
return from;
});
}
//# passes : the script that follows the moves of a block from its first list to its last
function followed(lists){
const items=lists[0].items.map(text=>({text,now:text,was:[],gone:''}));
let last=items.slice(),before=lists[0].items;
for(const list of lists.slice(1)){
const from=comesFrom(before,list.items,list.what),kept=new Set(from),old=last;
last=[];
list.items.forEach((text,k)=>{
const item=from[k]<0?{text:'',now:'',was:[],gone:'',near:last[k-1]}:old[from[k]];
if(from[k]<0)items.splice(items.indexOf(item.near)+1,0,item);
if(item.now!=text){item.now=text;item.was.push([list.what,text]);}
last.push(item);
});
old.forEach((item,k)=>{if(!kept.has(k))item.gone=list.what;});
before=list.items;
}
return {items,last};
}
